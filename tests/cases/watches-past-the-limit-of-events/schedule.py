print("pull alpha Ab3dE-00001 w 1\nshow beta Ab3dE-00001\n" * 16384 + "watch alpha Ab3dE-00001 w 0\n", end="")
