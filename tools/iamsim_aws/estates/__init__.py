"""Many accounts in one database; docs/estates.md has its schema."""
