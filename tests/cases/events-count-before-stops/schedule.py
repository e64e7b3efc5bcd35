print("stop alpha\n" * 32 + "start alpha\n" * (32768 - 32) + "stop alpha\n", end="")
