MODEL (name bikes.stations, kind SEED (path '../seeds/stations.csv'),
  columns (station INT, name TEXT, area TEXT, docks INT));
