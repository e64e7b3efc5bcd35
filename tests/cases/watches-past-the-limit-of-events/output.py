print("".join(f"{line} refused 2\n" for line in range(1, 32769)), end="")
