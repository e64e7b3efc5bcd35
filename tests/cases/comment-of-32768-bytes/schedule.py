print("#" * 32768)
print("show alpha Ab3dE-00001")
