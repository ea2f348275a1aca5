"""Parts of tools/check-page."""
