"""The page for a browser that giop-capture makes."""
