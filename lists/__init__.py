"""Event lists for people: as text, and as pictures. docs/TEXT.md is the page to read."""
