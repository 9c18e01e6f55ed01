"""Questions to iamsim about what AWS gives: worlds, who can, what changes, rules and pages. It decides nothing itself."""
