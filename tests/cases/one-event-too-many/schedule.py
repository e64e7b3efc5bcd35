print("show alpha Ab3dE-00001\n" * 32769, end="")
