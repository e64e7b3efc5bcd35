print("1 ok queued")
print("".join(f"{line} ok calm 64\n" for line in range(2, 257)), end="")
