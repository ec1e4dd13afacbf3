"""What the commands of dev/ are made of. They may use baytools; nothing in baytools uses them."""
