# The first calm has 132 events, each one after it 128: a tick of two nodes in each of its 64 passes.
print("propose alpha Ab3dE-00001 1 1 grid trade alpha,beta aaaa:scabbard:alpha,bbbb:scabbard:beta")
print("calm Ab3dE-00001 64\n" * 255, end="")
print("show gamma Ab3dE-00001\n" * 123, end="")
