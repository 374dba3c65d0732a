MODEL (name bikes.calendar, kind SEED (path '../seeds/calendar.csv'),
  columns (day DATE, weekday TEXT, weekend BOOL));
