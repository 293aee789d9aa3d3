create schema if not exists totxegun_store;
-- One row: what the store is. `filling` while what a folder has is on its way here: `move` is that folder's epoch. `sink` is
-- where all goes, as the file `version` of a folder has it.
create table totxegun_store.cluster (
    id text primary key, version int not null, shards int not null, epoch text not null, reading text not null,
    secret text not null, filling boolean not null default false, move text not null default '',
    folder text not null default '', sink text not null default '');
create table totxegun_store.instance (
    -- Other instances bring posts to the one address, operators of other machines ask at the other; empty if they can't.
    name text primary key, address text not null, operate text not null, version text not null, beat bigint not null,
    -- Processes that have begun under this name, the first of which counts, and how often each of the last ones has beaten, by its
    -- number.
    life bigint not null, lives jsonb not null,
    -- What it tells of itself (`InstanceReport` in cluster/terms.rs), in JSON.
    told text not null);
-- The fence. Its rows are never deleted. What is written of a shard locks its row where term, connection_epoch and epoch are as the writer
-- knows them: the term is the owner's, the connection_epoch the last connection of the owner's. The epoch is drawn at each taking: a store
-- that was put back from a dump has each term again, and no epoch. `begun` says that the shard has had files.
create table totxegun_store.shard (
    shard int primary key, term bigint not null, connection_epoch bigint not null, owner text not null, epoch text not null default '',
    begun boolean not null default false);
-- Up to which request of a shard its owner has brought to a sink in this database, in the transaction of that request.
create table totxegun_store.delivered (
    shard int primary key, term bigint not null, number bigint not null);
create table totxegun_store.file (
    shard int not null, file bigint not null, name text not null, primary key (shard, file));
-- Bytes of a file from a place on. A later number counts where two overlap; a shard has none twice. Packed (raw deflate) where
-- `bytes` has another length. The order of the columns leaves no gaps in a row.
create table totxegun_store.piece (
    file bigint not null, number bigint not null, place bigint not null, shard int not null, length int not null,
    bytes bytea not null, primary key (shard, number));
