"""Tables of who may do what, as text and as HTML."""
