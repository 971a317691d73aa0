"""The pages: README and the tutorial are run here; each command of the administrator's pages is run somewhere."""
