print("show m1 1\n" * 32769, end="")
