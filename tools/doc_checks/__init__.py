"""What tools/check-docs checks: the names that pages cite, and the lists that they hold."""
