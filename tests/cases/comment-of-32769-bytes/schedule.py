print("show alpha Ab3dE-00001")
print("#" * 32769)
print("show alpha Ab3dE-00001")
