print("roll alpha\n" * 32769, end="")
