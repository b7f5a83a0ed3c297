"""The lashing check at a desk: a readable stack in, a table and a picture out."""
