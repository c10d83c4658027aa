-- Statements of many kinds, whose words are looked up when the look-up of words is measured.
create table stations (code char(5) constraint stations_key primary key, title varchar(40) not null, opened date,
  region integer references regions (id) on delete cascade on update restrict, height numeric(7, 2) default 0 check (height > -450));
insert into stations (code, title, opened, region) values ('OSL', 'Oslo S', '1980-05-30', 3)
  on conflict (code) do update set title = excluded.title where stations.title is distinct from excluded.title returning *;
with late as (select train, max(delay) as worst from arrivals where arrived >= current_timestamp - interval '1 day' group by train)
select s.title as station, count(*) filter (where l.worst > 5) over (partition by s.region order by s.title) as trains
from stations s left join lateral (select a.train from arrivals a where a.station = s.code limit 10 offset 0) v on true
  join late l using (train) where s.title ilike 'o%' and l.worst between 1 and 90 having count(*) > 5
order by trains desc nulls last fetch first 20 rows only for update skip locked;
update arrivals set delay = case when delay < 0 then 0 else delay end, checked = true where id in (select id from suspects);
alter table arrivals add constraint arrivals_train foreign key (train) references trains (number) match full not valid;
create or replace function worst_delay(wanted text) returns integer as $$ select max(delay) from arrivals where train = wanted $$
  language sql stable parallel safe;
create unique index concurrently if not exists stations_title on stations (title) include (region) tablespace fast;
create materialized view busiest as select station, sum(passengers) as total from arrivals group by rollup (station, train) with no data;
grant select, insert on all tables in schema public to operator_role; revoke all privileges on regions from guest;
begin isolation level serializable; savepoint before_import; rollback to savepoint before_import; commit;
vacuum analyze arrivals; explain analyze select distinct on (train) train, delay from arrivals; copy stations from stdin with (format csv);
