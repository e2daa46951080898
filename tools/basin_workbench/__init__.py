"""A workbench in the browser: a page that shows a basin and changes it, and the server on this computer behind it."""
