# 67,108,866 bytes: two more than a schedule may have.
import sys

sys.stdout.write("#\n" * 33554433)
