print("show alpha Ab3dE-00001\n" * 32768, end="")
