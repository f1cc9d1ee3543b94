create table guest (id integer primary key, name text, steps integer);
insert into guest (name, steps) values ('hello', 3), ('primes', 3443), ('hanoi', 228), ('sort', 6156);
create index by_steps on guest (steps);
select name, steps from guest where steps > 1000 order by steps desc;
select count(*), sum(steps), round(avg(steps), 2) from guest;
with recursive number (n) as (select 1 union all select n + 1 from number where n < 10)
  select group_concat(n * n, ' ') from number;
select sqlite_version();
pragma integrity_check;
