print("".join(f"{line} ok undecided\n" for line in range(1, 32769)), end="")
