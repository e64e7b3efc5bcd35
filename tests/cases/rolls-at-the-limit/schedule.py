print("roll alpha\n" * 32768, end="")
