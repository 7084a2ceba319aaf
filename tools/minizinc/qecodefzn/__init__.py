"""From FlatZinc to qecode's problem texts, and from its answers back."""
