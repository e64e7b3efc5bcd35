print("".join(f"{line} ok roll 0\n" for line in range(1, 32769)), end="")
