-- Of PostgreSQL alone. What was packed is not packed again, and what is deleted gets free soon.
alter table totxegun_store.piece alter column bytes set storage external;
alter table totxegun_store.piece set (
    autovacuum_vacuum_scale_factor = 0, autovacuum_vacuum_threshold = 1000, autovacuum_vacuum_cost_delay = 0,
    toast.autovacuum_vacuum_scale_factor = 0, toast.autovacuum_vacuum_threshold = 1000,
    toast.autovacuum_vacuum_cost_delay = 0);
alter table totxegun_store.shard set (fillfactor = 10, autovacuum_vacuum_threshold = 1000);
alter table totxegun_store.instance set (fillfactor = 10);
alter table totxegun_store.delivered set (fillfactor = 10);
