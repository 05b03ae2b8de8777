"""`python3 -m gbkeep.desktop` is gbkeep-window."""
from ..window import start

if __name__ == '__main__':
    start()
