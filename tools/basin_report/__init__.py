"""A run as one page for a browser: what the page knows, its pictures where no script runs, and its parts."""
