# The calms have 132 and 128 events. Before the second there are 32,766, so that it passes the limit after two ticks.
print("propose alpha Ab3dE-00001 1 1 grid trade alpha,beta aaaa:scabbard:alpha,bbbb:scabbard:beta")
print("calm Ab3dE-00001 64")
print("show gamma Ab3dE-00001\n" * 32633, end="")
print("calm Ab3dE-00001 64")
print("show gamma Ab3dE-00001")
