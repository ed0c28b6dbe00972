# kubecel and celcheck out of release/, which docs/PACKAGES.md shows.
FROM debian:stable-slim AS released
COPY . /kube_cel
RUN /kube_cel/install --released /usr/local

FROM debian:stable-slim
RUN apt-get update \
    && apt-get install -y --no-install-recommends python3-yaml \
    && rm -rf /var/lib/apt/lists/*
COPY LICENSE NOTICE /usr/local/share/doc/kubecel/
COPY --from=released /usr/local /usr/local
USER 65534:65534
WORKDIR /manifests
ENTRYPOINT ["kubecel"]
