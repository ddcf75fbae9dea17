-- What the scripts of tests share; a difference ends them with its query.
CREATE EXTENSION hivevigil;

-- do both queries answer the same?
CREATE FUNCTION same(runs text, plain text) RETURNS void LANGUAGE plpgsql AS $$
DECLARE found text; wanted text;
BEGIN
    EXECUTE format('SELECT string_agg(x::text, '' '') FROM (%s) AS x', runs) INTO found;
    EXECUTE format('SELECT string_agg(x::text, '' '') FROM (%s) AS x', plain) INTO wanted;
    IF found IS DISTINCT FROM wanted THEN RAISE EXCEPTION E'%\nanswers %\nand should %', runs, found, wanted; END IF;
END $$;
-- is the query refused with this sentence?
CREATE FUNCTION refused(query text, sentence text) RETURNS void LANGUAGE plpgsql AS $$
BEGIN
    BEGIN
        EXECUTE query;
    EXCEPTION WHEN OTHERS OR query_canceled THEN
        IF SQLERRM <> sentence THEN RAISE EXCEPTION E'%\nis refused by: %', query, SQLERRM; END IF;
        RETURN;
    END;
    RAISE EXCEPTION '% is not refused', query;
END $$;
