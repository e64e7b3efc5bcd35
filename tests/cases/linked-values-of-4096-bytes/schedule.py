ID = "Ab3dE-00001"
print(f"propose alpha {ID} 1 1 grid trade alpha,beta aaaa:scabbard:alpha,bbbb:scabbard:beta")
print(f"vote beta {ID} accept")
at = lambda k: f"{k:070x}"
print(f"submit alpha {ID} 1 tx out: set:{at(1)}={'2a' * 4096}")
print(f"submit beta {ID} 2 tx out: set:{at(2)}={'2a' * 4097}")
print(f"submit beta {ID} 3 tx in: out: get:{at(1)} set:{at(1)}= set:{at(2)}={'00' * 4096} event:kind={'ff' * 4096}")
print(f"get alpha {ID} {at(2)}")
print(f"root alpha {ID}")
print(f"history beta {ID}")
