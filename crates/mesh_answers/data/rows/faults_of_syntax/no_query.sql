MODEL (name a.f, kind FULL);
