-- A column of levels, a role for each level, and row policies: U sees the rows of U, S sees all.
CREATE ROLE keeper; CREATE ROLE level_u; CREATE ROLE level_s;
CREATE ROLE ann LOGIN IN ROLE level_u; CREATE ROLE bob LOGIN IN ROLE level_s;
CREATE TABLE ship (name text PRIMARY KEY, level text, objective text, load int CHECK (load <= 500));
CREATE TABLE crew (name text PRIMARY KEY, level text, ship text REFERENCES ship);
ALTER TABLE ship OWNER TO keeper; ALTER TABLE ship ENABLE ROW LEVEL SECURITY;
ALTER TABLE crew OWNER TO keeper; ALTER TABLE crew ENABLE ROW LEVEL SECURITY;
GRANT SELECT, INSERT, UPDATE, DELETE ON ship, crew TO level_u, level_s;
CREATE POLICY at_u ON ship TO level_u USING (level = 'U');
CREATE POLICY at_u ON crew TO level_u USING (level = 'U');
CREATE POLICY at_s ON ship TO level_s USING (true) WITH CHECK (level = 'S');
CREATE POLICY at_s ON crew TO level_s USING (true) WITH CHECK (level = 'S');

-- 1. ann takes a key that a hidden row has.
\connect - bob
INSERT INTO ship VALUES ('Voyager', 'S', 'Spying', 495), ('Reliant', 'S', 'Spying', 480);
\connect - ann
SELECT * FROM ship;
INSERT INTO ship VALUES ('Voyager', 'U', 'Survey', 20);

-- 2. ann refers to a hidden row, and to none.
INSERT INTO crew VALUES ('Ito', 'U', 'Reliant');
INSERT INTO crew VALUES ('Kim', 'U', 'Nowhere');

-- 3. Functions that read and write above ann.
\connect - postgres
CREATE FUNCTION is_free(which text) RETURNS boolean LANGUAGE plpgsql SECURITY DEFINER AS $$
DECLARE
  free boolean := true;
BEGIN
  IF EXISTS (SELECT FROM public.ship WHERE name = which AND objective = 'Spying') THEN
    free := false;
  END IF;
  RETURN free;
END $$;
CREATE FUNCTION set_load(which text, new_load int) RETURNS void LANGUAGE sql SECURITY DEFINER
  AS $$ UPDATE public.ship SET load = new_load WHERE name = which AND level = 'S' $$;
ALTER FUNCTION is_free OWNER TO keeper; ALTER FUNCTION set_load OWNER TO keeper;
\connect - ann
SELECT is_free('Reliant'), is_free('Nowhere');
SELECT set_load('Reliant', 900);
SELECT set_load('Nowhere', 900);

-- 4. The mend: the level becomes part of the key.
\connect - postgres
CREATE TABLE vessel (name text, level text, objective text, load int, PRIMARY KEY (name, level));
ALTER TABLE vessel OWNER TO keeper; ALTER TABLE vessel ENABLE ROW LEVEL SECURITY;
GRANT SELECT, INSERT, UPDATE, DELETE ON vessel TO level_u, level_s;
CREATE POLICY at_u ON vessel TO level_u USING (level = 'U');
CREATE POLICY at_s ON vessel TO level_s USING (true) WITH CHECK (level = 'S');
\connect - ann
INSERT INTO vessel VALUES ('Enterprise', 'U', 'Survey', 100);
\connect - bob
INSERT INTO vessel SELECT name, 'S', 'Spying', load FROM vessel WHERE name = 'Enterprise';
\connect - ann
UPDATE vessel SET load = 120 WHERE name = 'Enterprise';
SELECT * FROM vessel;
\connect - bob
SELECT * FROM vessel ORDER BY name, level DESC;
