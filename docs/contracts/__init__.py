"""What the sources of crates/ say of the calls of the crates, and the layers that their uses make."""
