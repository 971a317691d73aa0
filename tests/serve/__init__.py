"""The desk at a port, by curl; behind nginx and HAProxy too."""
