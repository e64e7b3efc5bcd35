# The first calm alone: alpha asks for the vote, commits and tells beta, who asks once more, and 61 passes have nothing left to do.
ID = "Ab3dE-00001"
print(f"propose alpha {ID} 1 1 grid trade alpha,beta aaaa:scabbard:alpha,bbbb:scabbard:beta")
print(f"tick alpha {ID}")
print(f"deliver alpha beta {ID} 1")
print(f"deliver beta alpha {ID} 1")
print(f"tick alpha {ID}\ntick beta {ID}")
print(f"deliver alpha beta {ID} 2")
print(f"deliver beta alpha {ID} 2")
print(f"tick alpha {ID}\ntick beta {ID}")
print(f"deliver alpha beta {ID} 3")
print(f"tick alpha {ID}\ntick beta {ID}\n" * 61, end="")
print(f"show gamma {ID}\n" * 32633, end="")
