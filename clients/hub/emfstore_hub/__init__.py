"""A hub: many users over one program that serves a store, each user's turn as a whole.

The program is `emftools serve POLICY`. It is proved that it reads each frame as that user's turn, whatever the bytes are. The hub adds who a
connection is, an order, and bounds. `python3 -m emfstore_hub` starts one, `python3 -m emfstore_hub.cat` speaks to it.
"""
