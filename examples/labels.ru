PREFIX skos: <http://www.w3.org/2004/02/skos/core#>
DELETE { ?tea skos:prefLabel ?name }
INSERT { ?tea skos:altLabel ?name }
WHERE { ?tea skos:prefLabel ?name }
