"""The release: what the commands say of themselves, man pages, completions, the archive and the package."""
