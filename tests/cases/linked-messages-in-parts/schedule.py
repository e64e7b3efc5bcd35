# Requests with batches of 16,347 and 16,348 bytes are of 16,384 and 16,385: one body, and two parts. Forwarded batches of 16,359
# and 16,360 bytes are messages of as many.
ID = "Ab3dE-00001"
print(f"propose alpha {ID} 1 1 grid trade alpha,beta aaaa:scabbard:alpha,bbbb:scabbard:beta")
print(f"vote beta {ID} accept")
whole = " tx" + f" event:{'k' * 64}=" * 16
for number, (node, size) in enumerate([("alpha", 16347), ("alpha", 16348), ("beta", 16359), ("beta", 16360), ("beta", 23600)], 1):
    # Of a batch 10 bytes are its own, 1,110 those of a whole transaction, 9 those of one with data, and 3 of data more.
    data = size - 10 - 14 * 1110 - 9 - (0 if size < 20000 else 3)
    print(f"submit {node} {ID} {number}" + whole * 14 + f" tx data:{'5a' * min(data, 4096)}" + (f" data:{'a5' * (data - 4096)}" if data > 4096 else ""))
print(f"history alpha {ID}")
print(f"history beta {ID}")
print(f"stop beta")
print(f"start beta")
print(f"root alpha {ID}")
print(f"root beta {ID}")
