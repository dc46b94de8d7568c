"""Programs that serve a site, and sites in files: who starts the next one, who may edit, and what is kept."""
