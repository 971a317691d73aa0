"""What a stranger, an operator or a web page could do to a desk behind nginx and HAProxy with the files of deploy/."""
