print("1 ok queued")
print("".join(f"{line} ok calm 64\n" for line in range(2, 257)), end="")
print("".join(f"{line} refused 2\n" for line in range(257, 380)), end="")
