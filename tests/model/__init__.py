"""A model of document 01 in plain Python, written from its sentences and not from the proved code. One file a layer."""
