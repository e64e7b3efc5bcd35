# The line of the batch has 32,768 bytes, its byte form 24,901, a message with it 24,938.
ID = "Ab3dE-00001"
print(f"propose alpha {ID} 1 1 grid trade alpha,beta aaaa:scabbard:alpha,bbbb:scabbard:beta")
print(f"calm {ID} 8")
print(f"vote beta {ID} accept")
print(f"calm {ID} 8")
whole = " tx" + f" event:{'k' * 64}=" * 16
last = " tx" + f" event:{'k' * 64}=" * 14 + f" event:{'k' * 64}={'5a' * 4096} event:{'k' * 64}={'a5' * 3035}"
print(f"submit alpha {ID} 1" + whole * 15 + last)
print(f"calm {ID} 4")
print(f"status alpha {ID} 1")
print(f"root beta {ID}")
