#!/bin/sh
# cards 1 to 9 as the program runs them are those that are proved
exec python3 tests/cards.py proved
