# Stops of processes that are up and of ones that are down, and starts, which aren't counted.
print("stop c1\n" * 16 + "start c1\n" + "stop l3\n" * 17, end="")
