"""What the scripts of tools/ are made of."""
