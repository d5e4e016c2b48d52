"""What a run was: a page that plays it, pictures, tables, figures."""
