"""What ./omnisim can do beyond the program's own words."""
